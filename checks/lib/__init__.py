"""What the checks share: a client, the notation of sessions, random stories, and the model of the adapter in Python."""
