"""The parts of piql-serve: its sockets, its clients, the statements that wait, and the one run that makes them."""
