"""Routes of the API under `/v1`, and pages of the dashboard under `/ui`."""
