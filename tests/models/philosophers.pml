/* Three philosophers and three forks. With -DFAULT each takes the fork at the left first, and all may wait for ever; else the last one begins at the right. */
#define N 3
bool fork[N];           /* taken */
byte eating = 0;        /* how many eat */
bool eats = false;      /* the first one eats */
bool hungry = false;    /* the first one is hungry */

#define LEFT  _pid
#define RIGHT ((_pid + 1) % N)

active [N] proctype philosopher()
{
    byte first, second;
#ifdef FAULT
    first = LEFT; second = RIGHT;
#else
    if
    :: _pid == N - 1 -> first = RIGHT; second = LEFT
    :: else -> first = LEFT; second = RIGHT
    fi;
#endif
    do
    :: if
       :: _pid == 0 -> hungry = true
       :: else
       fi;
       atomic { !fork[first] -> fork[first] = true };
       atomic { !fork[second] -> fork[second] = true; eating++;
           if
           :: _pid == 0 -> eats = true; hungry = false
           :: else
           fi
       };
       atomic { fork[first] = false; fork[second] = false; eating--;
           if
           :: _pid == 0 -> eats = false
           :: else
           fi
       }
    od
}
