"""An attack on the tools: folders, texts, streams, disks and kills, and what must hold of each."""
