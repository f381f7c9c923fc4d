"""What compression saves those who ask: seconds of a solver, of `bonsai-ask` and of FRR over large networks and small."""
