/* Two processes that end. The one that gets a message counts it; the last state then repeats for ever. */
chan link = [0] of { byte };
byte sum = 0;
bool done = false;

active proctype giver()
{
    link!1; link!2; link!3
}

active proctype taker()
{
    byte it;
    do
    :: link?it -> sum = sum + it
    :: sum == 6 -> break
    od;
    done = true
}
