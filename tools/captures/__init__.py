# SPDX-License-Identifier: MIT
"""From captures to traces (packets, dnstap, traffic), from traces to what a cache would have
answered (replays, memory, curves), and why (reasons)."""
