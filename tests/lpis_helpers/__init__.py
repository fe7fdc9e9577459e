"""What the tests and benches share: lands, years, registers, judges. Its own name keeps each module apart from any
that is installed."""
