"""Sets of faults that explain a log, ranked as a technician would."""
