// Networks and their components are left out.
