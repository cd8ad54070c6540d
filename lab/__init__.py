"""The lab: arcv's model beside FRRouting. README.md says what is compared, and how."""
