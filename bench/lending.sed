# The loops of crates/bench/src/tracker.rt on a tracker that they lend.
s/gesture::tick(t, /lent::tick(\&mut t, /
s/= reported(t, /= lent::event(\&mut t, /
/t = a\.tracker;/d
s/= &a\.told/= \&a/
