import { Button, Door,Timer } from "std"


in  opened: bool
in closed : bool

var delay=5
on change(opened ,closed) {
if opened && !closed {
Door.open( delay ,true )
}
else {
    Timer.start(delay)
}
}
