"""What bin/compare measures and how: the texts, the engines, and what a turn of each costs."""
