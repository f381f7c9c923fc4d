"""Real routers started again and again: what they come to rest in, against what is told of all stable solutions."""
