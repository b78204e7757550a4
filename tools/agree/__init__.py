"""Models beside the machines of their memory models: on tests, on random programs and on all small ones."""
