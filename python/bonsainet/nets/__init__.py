"""Texts of networks that follow a rule or chance."""
