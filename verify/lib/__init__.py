"""What the programs of verify/ share."""
