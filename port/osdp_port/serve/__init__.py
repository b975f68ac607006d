"""A line as a service: orders come from a broker of MQTT 5, and outcomes and events go there. docs/BROKER.md
has the topics, and what is stored when."""
