"""What the tools share. Nothing here is taken from model/, whose model of the protocol stays independent."""
