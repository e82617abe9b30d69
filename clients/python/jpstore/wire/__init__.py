"""The way between a client and the program: lines, replies, processes and sockets, and the layout of a file."""
