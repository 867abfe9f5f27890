/* A sliding window over channels that lose messages. The sender sends up to WINDOW messages before the first one is acknowledged, and sends them again. Their
   numbers go round. */
#define WINDOW 3
#define NUMBERS 6
chan data = [3] of { byte };
chan acks = [3] of { byte };
byte oldest = 0;   /* the number of the oldest message that isn't acknowledged */
byte next_ = 0;    /* that of the next one to be sent */
byte wanted = 0;   /* the one that the receiver waits for */
bool lost = false; /* the last step lost a message */
#define idle (oldest == next_)
#define full ((next_ + NUMBERS - oldest) % NUMBERS == WINDOW)
#define got (wanted == next_)

active proctype sender()
{
    byte number;
    do
    :: atomic { !full -> data!next_; next_ = (next_ + 1) % NUMBERS; lost = false }
    :: atomic { !idle -> data!oldest; lost = false }
    :: atomic { acks?number -> oldest = number; number = 0; lost = false }
    od
}

active proctype receiver()
{
    byte number;
    do
    :: atomic { data?number ->
        if
        :: number == wanted -> wanted = (wanted + 1) % NUMBERS
        :: else
        fi;
        number = 0; lost = false }
    :: atomic { acks!wanted; lost = false }
    od
}

active proctype loss()
{
    do
    :: atomic { data?_ -> lost = true }
    :: atomic { acks?_ -> lost = true }
    od
}
