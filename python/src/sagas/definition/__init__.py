"""What users declare, and the values that their functions take and return."""
