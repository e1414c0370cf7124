#!/usr/bin/env bash
# How long `room check` takes on a model of 4,096 slots with 65,536 places, the most that a model
# may have: its time, least of five, and its instructions, and of these the wiring's two large parts.
set -eu
. "$(dirname "${BASH_SOURCE[0]}")/timing.sh"

# A top actor with 16 places; 255 actors with 16 relay places each, and in each of them 15 actors
# with 16 places each; and 15 more of these at the top.
cat >"$work/model.room" <<'MODEL'
RoomModel M {
LogicalSystem L { SubSystemRef s: S }
SubSystemClass S { ActorRef top: T LogicalThread one LogicalThread two ActorInstanceMapping top/a -> two }
ProtocolClass PP { incoming { Message ping() } outgoing { Message pong() } }
ActorClass V { Interface { Port p[8]: PP conjugated Port q[8]: PP } Structure { external Port p external Port q } }
ActorClass U { Interface { Port r[8]: PP conjugated Port s[8]: PP } Structure { ActorRef v[15]: V
Binding r and v.p Binding v.q and v.p Binding s and v.q } }
ActorClass T { Structure { Port t[16]: PP ActorRef a[255]: U ActorRef c[15]: V Binding a.r and a.s Binding c.p and c.q } }
}
MODEL

begin_measuring
took="$(best "$program" check "$work/model.room")"
all="$(instructions check "$work/model.room")"
slots="$(instructions_in '[ :]wiring_slots::')"
joined="$(instructions_in '[ :]binding_expand::')"
echo "4,096 slots with 65,536 places: checked in $(milliseconds "$took") ms," \
    "$all instructions, of which $slots for the slots and $joined for what is joined"
