"""What tests and measurements share: Git without the user's settings, programs that may hang, servers and clients."""
