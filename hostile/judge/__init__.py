"""The second reader: an independent judge of texts and answers, written from the documents alone. Slow and plain."""
