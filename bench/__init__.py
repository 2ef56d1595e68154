"""How long the built program and its parts take."""
