"""The bot's search."""
