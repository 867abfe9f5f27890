/* Mutual exclusion of two processes by Peterson's algorithm. With -DFAULT they forget to say whose turn it is to wait. */
bool wants[2];
byte turn;
byte inside;            /* how many are in the critical section */
bool waits = false;     /* the first process waits */
bool enters = false;    /* the first process is in the critical section */

active [2] proctype user()
{
    do
    :: wants[_pid] = true;
       if
       :: _pid == 0 -> waits = true
       :: else
       fi;
#ifndef FAULT
       turn = 1 - _pid;
#endif
       (!wants[1 - _pid] || turn == _pid);
       atomic {
           inside++;
           if
           :: _pid == 0 -> waits = false; enters = true
           :: else
           fi
       };
       atomic {
           inside--;
           if
           :: _pid == 0 -> enters = false
           :: else
           fi
       };
       wants[_pid] = false
    od
}
