"""The tests of the clients in this folder; `examples/editor/test` runs them."""
