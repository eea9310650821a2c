"""The worked cases of the model, a file for each section of document 01; tests/selftest.py runs them. Those of document
02's request Q-1: decimals, reports (verdicts), reports_in (steps), reporting (the call), report_lines;
of Q-2: sums; of Q-3: zeros; of Q-4: stores, replays, store_lines; of Q-5: gaps; of Q-6: duplicates; of Q-10: sequence, the
checker of its sentences."""
