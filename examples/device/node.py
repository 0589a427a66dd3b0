"""A node of ROS 2 that drives a plant by a table: it takes the state in the model's units from the topic `state`, and each sample publishes the
values of the inputs on `input`. Needs rclpy and std_msgs, and the module (`pip install ./tools`). Run as `node.py TABLE MODEL SECONDS`."""

import sys
from pathlib import Path

import rclpy
from gaffcurrant_plant import Monitor, NoRow, read_table, read_units
from rclpy.node import Node
from std_msgs.msg import Float64MultiArray


class TableNode(Node):
    """said: `drives`, `arrived`, or `no promise`, where the safe values are applied."""

    def __init__(self, table, model, sample, safe=(0.0,)):
        super().__init__("gaffcurrant")
        rows = read_table(Path(table).read_bytes())
        self.real = rows.in_units(read_units(model, Path(model).read_bytes()))
        self.monitor, self.state, self.safe, self.said = Monitor(rows), None, safe, None
        self.inputs = self.create_publisher(Float64MultiArray, "input", 1)
        self.create_subscription(Float64MultiArray, "state", self.measured, 1)
        self.create_timer(sample, self.control)

    def measured(self, message):
        self.state = list(message.data)

    def control(self):
        """Applies the row of the last message, once: a state that was used before is too old."""
        state, self.state = self.state, None
        try:
            is_promised = state is not None and self.monitor.falls(self.real.whole(state))
            values = self.real.choice(state) if is_promised else None
        except (NoRow, ValueError):
            is_promised, values = False, None
        self.said = "no promise" if not is_promised else "arrived" if values is None else "drives"
        self.inputs.publish(Float64MultiArray(data=list(values or self.safe)))


if __name__ == "__main__":
    rclpy.init()
    rclpy.spin(TableNode(sys.argv[1], sys.argv[2], float(sys.argv[3])))
