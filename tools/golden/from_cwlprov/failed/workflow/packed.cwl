{
 "$graph": [
  {
   "class": "CommandLineTool",
   "id": "#broken",
   "baseCommand": [
    "sh",
    "-c",
    "exit 3"
   ],
   "inputs": [
    {
     "type": "File",
     "inputBinding": {
      "position": 1
     },
     "id": "#broken/file"
    }
   ],
   "stdout": "merged.txt",
   "outputs": [
    {
     "type": "File",
     "id": "#broken/merged",
     "outputBinding": {
      "glob": "merged.txt"
     }
    }
   ]
  },
  {
   "class": "CommandLineTool",
   "id": "#cat1",
   "hints": [
    {
     "dockerPull": "busybox:1.36",
     "class": "DockerRequirement"
    },
    {
     "packages": [
      {
       "version": [
        "9.1"
       ],
       "package": "coreutils"
      }
     ],
     "class": "SoftwareRequirement"
    }
   ],
   "baseCommand": "cat",
   "inputs": [
    {
     "type": "File",
     "inputBinding": {
      "position": 1
     },
     "id": "#cat1/file"
    }
   ],
   "stdout": "merged.txt",
   "outputs": [
    {
     "type": "File",
     "id": "#cat1/merged",
     "outputBinding": {
      "glob": "merged.txt"
     }
    }
   ]
  },
  {
   "class": "Workflow",
   "id": "#inner",
   "requirements": [
    {
     "class": "ScatterFeatureRequirement"
    }
   ],
   "inputs": [
    {
     "type": {
      "type": "array",
      "items": "File"
     },
     "id": "#inner/many"
    },
    {
     "type": "File",
     "id": "#inner/one"
    }
   ],
   "outputs": [
    {
     "type": {
      "type": "array",
      "items": "File"
     },
     "outputSource": "#inner/pair/merged",
     "id": "#inner/all"
    }
   ],
   "steps": [
    {
     "run": "#pair",
     "scatter": "#inner/pair/b",
     "in": [
      {
       "source": "#inner/one",
       "id": "#inner/pair/a"
      },
      {
       "source": "#inner/many",
       "id": "#inner/pair/b"
      }
     ],
     "out": [
      "#inner/pair/merged"
     ],
     "id": "#inner/pair"
    }
   ]
  },
  {
   "class": "CommandLineTool",
   "id": "#label",
   "baseCommand": "echo",
   "inputs": [
    {
     "type": "string",
     "inputBinding": {
      "position": 1
     },
     "id": "#label/text"
    }
   ],
   "stdout": "merged.txt",
   "outputs": [
    {
     "type": "File",
     "id": "#label/merged",
     "outputBinding": {
      "glob": "merged.txt"
     }
    }
   ]
  },
  {
   "class": "Workflow",
   "id": "#main",
   "requirements": [
    {
     "class": "InlineJavascriptRequirement"
    },
    {
     "class": "ScatterFeatureRequirement"
    },
    {
     "class": "StepInputExpressionRequirement"
    },
    {
     "class": "SubworkflowFeatureRequirement"
    }
   ],
   "inputs": [
    {
     "type": {
      "type": "array",
      "items": "File"
     },
     "id": "#main/reads"
    },
    {
     "type": "File",
     "id": "#main/ref"
    }
   ],
   "outputs": [
    {
     "type": {
      "type": "array",
      "items": {
       "type": "array",
       "items": "File"
      }
     },
     "outputSource": "#main/outer/all",
     "id": "#main/deep"
    },
    {
     "type": {
      "type": "array",
      "items": "File"
     },
     "outputSource": "#main/first/merged",
     "id": "#main/good"
    }
   ],
   "steps": [
    {
     "run": "#cat1",
     "scatter": "#main/first/file",
     "in": [
      {
       "source": "#main/reads",
       "id": "#main/first/file"
      }
     ],
     "out": [
      "#main/first/merged"
     ],
     "id": "#main/first"
    },
    {
     "run": "#label",
     "scatter": "#main/label/text",
     "in": [
      {
       "source": "#main/name/text",
       "id": "#main/label/text"
      }
     ],
     "out": [
      "#main/label/merged"
     ],
     "id": "#main/label"
    },
    {
     "run": "#name",
     "scatter": "#main/name/file",
     "in": [
      {
       "source": "#main/first/merged",
       "id": "#main/name/file"
      }
     ],
     "out": [
      "#main/name/text"
     ],
     "id": "#main/name"
    },
    {
     "run": "#inner",
     "scatter": "#main/outer/one",
     "in": [
      {
       "source": "#main/reads",
       "id": "#main/outer/many"
      },
      {
       "source": "#main/first/merged",
       "id": "#main/outer/one"
      }
     ],
     "out": [
      "#main/outer/all"
     ],
     "id": "#main/outer"
    },
    {
     "run": "#broken",
     "in": [
      {
       "source": "#main/ref",
       "id": "#main/second/file"
      }
     ],
     "out": [
      "#main/second/merged"
     ],
     "id": "#main/second"
    },
    {
     "run": "#cat1",
     "in": [
      {
       "source": "#main/second/merged",
       "id": "#main/third/file"
      }
     ],
     "out": [
      "#main/third/merged"
     ],
     "id": "#main/third"
    }
   ]
  },
  {
   "class": "ExpressionTool",
   "id": "#name",
   "requirements": [
    {
     "class": "InlineJavascriptRequirement"
    }
   ],
   "inputs": [
    {
     "type": "File",
     "id": "#name/file"
    }
   ],
   "outputs": [
    {
     "type": "string",
     "id": "#name/text"
    }
   ],
   "expression": "${return {\"text\": inputs.file.checksum};}"
  },
  {
   "class": "CommandLineTool",
   "id": "#pair",
   "baseCommand": "cat",
   "inputs": [
    {
     "type": "File",
     "inputBinding": {
      "position": 1
     },
     "id": "#pair/a"
    },
    {
     "type": "File",
     "inputBinding": {
      "position": 2
     },
     "id": "#pair/b"
    }
   ],
   "stdout": "merged.txt",
   "outputs": [
    {
     "type": "File",
     "id": "#pair/merged",
     "outputBinding": {
      "glob": "merged.txt"
     }
    }
   ]
  }
 ],
 "cwlVersion": "v1.2"
}