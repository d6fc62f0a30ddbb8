"""What another solver answers to the scripts of ../users."""
