/* A queue with room for three messages. */
chan queue = [3] of { bool };

active proctype sender()
{
    do
    :: queue!true
    od
}

active proctype receiver()
{
    do
    :: queue?_
    od
}

ltl drains { [](len(queue) == 3 -> <>(len(queue) < 3)) }
