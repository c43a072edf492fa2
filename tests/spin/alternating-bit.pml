/* The alternating bit protocol of samples/alternating-bit.session, transition by transition, over channels of N messages.
 * A message may be taken and ignored, which stands for its loss. */
#ifndef N
#define N 4
#endif

chan data = [N] of { bit };
chan back = [N] of { bit };
bool owed[2];    /* is this bit under way, so that the receiver may take it? */

active proctype sender()
{
    xs data;
    xr back;
about0:
    atomic { data!0; owed[0] = true };
again0:
    if
    :: data!0 -> goto again0
    :: back?1 -> goto again0
    :: back?0 -> goto again0
    :: back?0
    fi;
about1:
    atomic { data!1; owed[1] = true };
again1:
    if
    :: data!1 -> goto again1
    :: back?0 -> goto again1
    :: back?1 -> goto again1
    :: back?1 -> goto about0
    fi
}

active proctype receiver()
{
    xr data;
    xs back;
wait0:
    if
    :: d_step { data?0; assert(owed[0]); owed[0] = false }
    :: data?0 -> goto wait0
    :: data?1 -> goto wait0
    :: back!1 -> goto wait0
    fi;
    back!0;
wait1:
    if
    :: back!0 -> goto wait1
    :: data?0 -> goto wait1
    :: data?1 -> goto wait1
    :: d_step { data?1; assert(owed[1]); owed[1] = false }
    fi;
    back!1 -> goto wait0
}
