/* Twelve processes that move by turns, and a large state. */
#define N 12
byte turn = 0;
byte much[2000];

active [N] proctype mover()
{
    do
    :: atomic { turn == _pid -> turn = (turn + 1) % N; much[turn] = 1 - much[turn] }
    od
}
