/* Each of two processes waits for the other one: no step is possible after two. */
byte steps = 0;
bool a = false, b = false;

active proctype one()
{
    steps++; b -> a = true
}

active proctype other()
{
    steps++; a -> b = true
}
