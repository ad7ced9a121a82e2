"""The `sagas` program as an engine: a process, or a library in this one."""
