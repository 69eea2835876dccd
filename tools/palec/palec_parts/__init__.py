"""The parts of palec: what `pale` answers, read and told. Nothing here judges: each verdict is one that `pale` wrote."""
