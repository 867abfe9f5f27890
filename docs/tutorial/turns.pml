/* The same lock, but the second process leaves it alone while the first one
   waits for it. */
bool lock = false;
bool wants = false; /* the first process waits for the lock */
bool has = false;   /* the first process holds it */

active proctype first()
{
    do
    :: wants = true;
       atomic { !lock -> lock = true; wants = false; has = true };
       atomic { has = false; lock = false }
    od
}

active proctype second()
{
    do
    :: atomic { !lock && !wants -> lock = true };
       lock = false
    od
}
