/* The alternating bit protocol over channels that lose messages. Data are the numbers 0, 1 and 2 in turn. With -DFAULT the receiver takes each message for
   a new one. */
mtype = { data, ack };
chan forth = [1] of { mtype, byte, bit };
chan back = [1] of { mtype, bit };
byte next = 0;          /* the number that the receiver has to get next */
bool wrong = false;     /* it got another one */
bool got = false;       /* it got a number in this step */
bool lost = false;      /* a message was lost in this step */

active proctype sender()
{
    byte number = 0;
    bit now = 0, answered;
    do
    :: forth!data(number, now)
    :: atomic { back?ack(answered) ->
           if
           :: answered == now -> now = 1 - now; number = (number + 1) % 3
           :: else
           fi
       }
    od
}

active proctype receiver()
{
    byte number;
    bit expected = 0, came;
    do
    :: atomic { forth?data(number, came) ->
           if
#ifdef FAULT
           :: true
#else
           :: came == expected
#endif
              -> if
              :: number != next -> wrong = true
              :: else
              fi;
              got = true; next = (number + 1) % 3; expected = 1 - came
           :: else
           fi
       };
       got = false;
       back!ack(came)
    od
}

active proctype loser()
{
    do
    :: atomic { forth?data(_, _) -> lost = true }; lost = false
    :: atomic { back?ack(_) -> lost = true }; lost = false
    od
}
