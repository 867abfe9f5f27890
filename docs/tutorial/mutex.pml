/* Two processes share a lock that anyone takes who finds it free. The first
   one may wait for ever, however fair the scheduler is: the lock is free
   again and again, but taken each time before the first one looks. */
bool lock = false;
bool wants = false; /* the first process waits for the lock */
bool has = false;   /* the first process holds it */

active proctype first()
{
    do
    :: wants = true;
       atomic { !lock -> lock = true; wants = false; has = true };
       atomic { has = false; lock = false }
    od
}

active proctype second()
{
    do
    :: atomic { !lock -> lock = true };
       lock = false
    od
}
