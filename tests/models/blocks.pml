/* A counter with properties of its own. */
#define top (count == LIMIT)
#define LIMIT 3
byte count = 0;
ltl returns { [] (top -> <> (count == 0)) }
ltl { [] (count < LIMIT) }

active proctype counter()
{
    do
    :: count < LIMIT -> count++
    :: count == LIMIT -> count = 0
    od
}

ltl steps { [] (count == 1 -> X (count == 2)) }
ltl stays { (count < 3) W (count == 3 && !(count > 3)) }
ltl reaches { eventually always top }
