#!/bin/sh
# Stands in for a program that does not end when its input does.
exec sleep 600
