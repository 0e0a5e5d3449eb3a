"""The companion of `hazard` for designers: see it, ask why, keep it as a test.

Nothing here is proved, so nothing here is claimed: each value and class is read from a report of `hazard`, and each run that
is shown stands in a report, or has been accepted by `hazard replay`.
"""
VERSION = "1.1.0"
