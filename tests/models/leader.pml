/* Election of a leader in a ring of three processes with different numbers: each passes on the greater numbers that it gets, and is the leader when it gets
   its own. With -DFAULT it passes on all of them. */
#define N 3
chan ring[N] = [N] of { byte };
byte leaders = 0;
byte leader = 0;        /* the number of the last one that was elected */
byte elected = 0;

proctype node(byte place; byte own)
{
    byte other;
    ring[(place + 1) % N]!own;
end:
    do
    :: ring[place]?other ->
       if
       :: other == own -> atomic { leaders++; leader = own; elected = 1 }; break
#ifdef FAULT
       :: other != own -> ring[(place + 1) % N]!other
#else
       :: other > own -> ring[(place + 1) % N]!other
       :: other < own
#endif
       fi
    od
}

init {
    atomic { run node(0, 5); run node(1, 9); run node(2, 7) }
}
