"""Makes packages of what bin/hosts leaves in hosts/out, and tries them. bin/package is the command."""
