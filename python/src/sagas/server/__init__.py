"""The HTTP service and its dashboard.

The coordinator as a service: callers and workers use HTTP from any language, and operators use
a dashboard.

`sagas serve PATH --definitions DIR` starts it. It needs the extra `sagas[server]`. See
docs/guides/service.md.
"""
