/* Processes that only change variables of their own, between labels. A label of the model that begins with `accept` is no part of the formula. */
byte rounds = 0;

active proctype left()
{
    byte x = 0;
accept_start:
    do
    :: x = 1 - x;
busy:  x = x;
       x = 0
    od
}

active proctype right()
{
    byte y = 0;
    do
    :: y = 1;
busy:  y = 2;
       y = 0; rounds = (rounds + 1) % 2
    od
}
