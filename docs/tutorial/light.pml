/* A traffic light: red, off, green, off, and again. Each assignment is one step. */
bool red = true;
bool green = false;
#define off (!red && !green)

active proctype light()
{
    do
    :: red = false;
       green = true;
       green = false;
       red = true
    od
}
