#!/usr/bin/env python3
import door

if __name__ == "__main__":
    door.open_to("ridepool.study.policies_command")
