/* Election of a leader in a ring of N processes with different numbers, by the algorithm of Dolev, Klawe and Rodeh: an active process that sees its neighbour's
   number above its own and that of the neighbour behind goes on with it, and every other one only passes messages on. */
#ifndef N
#define N 5
#endif
mtype = { first, second, winner };
chan ring[N] = [2 * N] of { mtype, byte };
byte leaders = 0;
byte known = 0;
#define one (leaders == 1)
#define many (leaders > 1)
#define all (known == N)

proctype node(byte place; byte own)
{
    bool active_ = true, knows = false;
    byte number, most = own, behind;
    ring[(place + 1) % N]!first(own);
end:
    do
    :: ring[place]?first(number) ->
       if
       :: active_ ->
          if
          :: number != most -> ring[(place + 1) % N]!second(number); behind = number
          :: else -> knows = true; ring[(place + 1) % N]!winner(number)
          fi
       :: else -> ring[(place + 1) % N]!first(number)
       fi
    :: ring[place]?second(number) ->
       if
       :: active_ ->
          if
          :: behind > number && behind > most -> most = behind; ring[(place + 1) % N]!first(behind)
          :: else -> active_ = false
          fi
       :: else -> ring[(place + 1) % N]!second(number)
       fi
    :: ring[place]?winner(number) ->
       if
       :: number == own -> leaders++
       :: else
       fi;
       if
       :: knows
       :: else -> ring[(place + 1) % N]!winner(number)
       fi;
       known++;
       break
    od
}

init {
    byte k = 0;
    atomic {
        do
        :: k < N -> run node(k, (k * 3) % N + 1); k++
        :: else -> break
        od
    }
}
