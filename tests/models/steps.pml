/* A process whose statements on variables of its own are steps, too. */
bool go = false, went = false;

active proctype walker()
{
    byte x = 0;
    go = true;
    x = 1;
    x = 2;
    went = true
}
