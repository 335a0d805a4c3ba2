cwlVersion: v1.2
class: Workflow
doc: A workflow with an ExpressionTool in it, twice and beside another step.
requirements: {SubworkflowFeatureRequirement: {}, MultipleInputFeatureRequirement: {}}
inputs: {left: 'File[]', right: 'File[]'}
outputs:
  all: {type: File, outputSource: join/made}
  one: {type: File, outputSource: second/made}
steps:
  first: {run: choose.cwl, in: {reads: left}, out: [made]}
  second: {run: choose.cwl, in: {reads: right}, out: [made]}
  join: {run: stamp.cwl, in: {read: [first/made, second/made]}, out: [made]}
