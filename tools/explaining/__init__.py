"""What `dswp tree`, `dswp explain` and `dswp run --why` write, read and shown to people."""
