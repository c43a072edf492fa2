/* The sliding window protocol of samples/sliding-window.session over channels of N messages: go-back-2, three numbers.
 * A message may be taken and ignored, which stands for its loss. */
#ifndef N
#define N 4
#endif
#define after(number, steps) ((number + steps) % 3)

chan data = [N] of { byte };
chan back = [N] of { byte };
byte b, k;    /* the oldest number that is not acknowledged, and how many are under way */

active proctype sender()
{
    xs data;
    xr back;
none:
    if
    :: atomic { data!b; k = 1 }
    :: back?_ -> goto none
    fi;
one:
    if
    :: atomic { data!after(b, 1); k = 2 }
    :: data!b -> goto one
    :: back?_ -> goto one
    :: d_step { back?eval(after(b, 1)); b = after(b, 1); k = 0 } -> goto none
    fi;
two:
    if
    :: data!b -> goto two
    :: data!after(b, 1) -> goto two
    :: back?_ -> goto two
    :: d_step { back?eval(after(b, 1)); b = after(b, 1); k = 1 } -> goto one
    :: d_step { back?eval(after(b, 2)); b = after(b, 2); k = 0 } -> goto none
    fi
}

active proctype receiver()
{
    byte r;    /* the number waited for */
    xr data;
    xs back;
    do
    :: d_step { data?eval(r); assert(after(r + 3, -b) < k); r = after(r, 1) }
    :: data?_
    :: back!r
    od
}
