"""The public calls: stores, clients and workers."""
